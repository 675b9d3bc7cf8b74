"""A folder of scenarios planned by one book or two, as pages."""
