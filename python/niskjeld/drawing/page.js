const scene = JSON.parse(document.getElementById('scene').textContent), space = 'http://www.w3.org/2000/svg';
const map = document.getElementById('map'), slider = document.getElementById('slider'), play = document.getElementById('play');
function add(tag, kind, parent) {
  const made = document.createElementNS(space, tag);
  if (kind) made.setAttribute('class', kind);
  (parent || map).appendChild(made);
  return made;
}
function points(corners) { return corners.map(p => p[0] + ',' + (-p[1])).join(' '); }
function middle(corners) {
  return [corners.reduce((sum, p) => sum + p[0], 0) / corners.length, -corners.reduce((sum, p) => sum + p[1], 0) / corners.length];
}
function label(text, at, said, size) {
  text.setAttribute('x', at[0]);
  text.setAttribute('y', at[1]);
  text.setAttribute('font-size', size);
  text.textContent = said;
}
const letter = Math.max(1.6, scene.view[2] / 45);
for (const lanelet of scene.lanelets) add('polygon', 'lanelet').setAttribute('points', points(lanelet.corners));
for (const goal of scene.goals) add('polygon', 'goal').setAttribute('points', points(goal));
const cars = scene.obstacles.map(o => ({group: add('g'), places: o.places, id: o.id}));
const drives = scene.drives.map(drive => {
  const group = add('g'), path = add('polyline', 'path', group), body = add('polygon', 'body', group);
  path.setAttribute('points', points(drive.path));
  for (const one of [path, body]) {
    one.setAttribute('stroke', drive.stroke[0]);
    one.setAttribute('stroke-dasharray', drive.stroke[1]);
  }
  return {group, body, drive};
});
for (const shown of drives) shown.text = add('text');

// Where a drive is at a tick of the slider: before its first step and after its last one it stands there.
function step(drive, tick) { return Math.max(0, Math.min(tick - drive.begin, drive.path.length - 1)); }

const curves = [...document.querySelectorAll('.curve')].map(row => ({
  row, line: row.querySelector('polyline'), mark: row.querySelector('line'), said: row.querySelector('.so-far'),
}));
const chosen = document.getElementById('chosen');
const most = scene.rules.map((_, rule) => Math.max(1, ...scene.drives.map(drive => drive.vector[rule])));
function drawCurves() {
  if (!chosen) return;
  const drive = scene.drives[+chosen.value], last = Math.max(1, scene.last);
  for (const [rule, curve] of curves.entries()) {
    const sums = drive.added[rule], end = drive.vector[rule], found = [];
    const height = value => 30 - 28 * value / most[rule];
    sums.forEach((sum, at) => {
      if (at) found.push([100 * (drive.begin + at) / last, height(sums[at - 1])]);
      found.push([100 * (drive.begin + at) / last, height(sum)]);
    });
    if (end !== sums[sums.length - 1]) found.push([100 * (drive.begin + sums.length - 1) / last, height(end)]);
    curve.line.setAttribute('points', found.map(p => p.join(',')).join(' '));
    curve.line.setAttribute('stroke', drive.stroke[0]);
  }
}
function showCurves(tick) {
  if (!chosen) return;
  const drive = scene.drives[+chosen.value], at = step(drive, tick), last = Math.max(1, scene.last);
  for (const [rule, curve] of curves.entries()) {
    const ended = at === drive.path.length - 1 && tick - drive.begin >= at;
    const value = ended ? drive.vector[rule] : drive.added[rule][at];
    curve.said.textContent = value + ' of ' + drive.vector[rule];
    for (const end of ['x1', 'x2']) curve.mark.setAttribute(end, 100 * tick / last);
  }
}
function show(tick) {
  document.getElementById('tick').textContent = 'tick ' + (scene.first + tick) + ' of ' + (scene.first + scene.last);
  for (const car of cars) {
    car.group.replaceChildren();
    for (const shape of car.places[tick] || []) {
      add('polygon', 'obstacle', car.group).setAttribute('points', points(shape));
      label(add('text', '', car.group), middle(shape), car.id, letter * 0.75);
    }
  }
  for (const [number, shown] of drives.entries()) {
    const body = shown.drive.bodies[step(shown.drive, tick)], at = middle(body);
    shown.body.setAttribute('points', points(body));
    label(shown.text, [at[0] + (number - (drives.length - 1) / 2) * letter * Math.min(0.8, 4 / drives.length), at[1]], shown.drive.letter, letter);
  }
  showCurves(tick);
}
slider.oninput = () => show(+slider.value);
for (const box of document.querySelectorAll('[data-drive]')) {
  box.onchange = () => {
    const shown = drives[+box.dataset.drive];
    for (const one of [shown.group, shown.text]) one.style.display = box.checked ? '' : 'none';
  };
}
if (chosen) chosen.onchange = () => { drawCurves(); show(+slider.value); };
let playing = 0;
function stop() {
  clearInterval(playing);
  playing = 0;
  play.textContent = 'Play';
}
function next() {
  if (+slider.value >= scene.last) return stop();
  slider.value = +slider.value + 1;
  show(+slider.value);
}
play.onclick = () => {
  if (playing) return stop();
  if (+slider.value >= scene.last) slider.value = 0;
  show(+slider.value);
  playing = setInterval(next, Math.max(40, 1000 * scene.step));
  play.textContent = 'Stop';
};
// Space plays and stops wherever it means nothing else.
document.addEventListener('keydown', event => {
  if (event.key === ' ' && !['BUTTON', 'INPUT', 'SELECT'].includes(event.target.tagName)) {
    event.preventDefault();
    play.click();
  }
});
drawCurves();
show(+slider.value);
