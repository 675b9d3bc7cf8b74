"""Hostile files, little memory and broken outputs for the program."""
