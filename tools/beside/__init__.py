"""Tools beside `jahob`: scripts over the program that claim nothing of their own. Each verdict that they show is the
program's."""
