"""The desk: what a planner does before and after the program `gicstudy`."""
