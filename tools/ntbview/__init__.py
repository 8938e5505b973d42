"""What people see of ntbsim. Nothing here is proved: what a tool must know of a step or an answer, the program says."""
