A variable may or may not have a value where the selection begins.
8 10
