"""What tools/compare/model compares, a file for each kind: its cases, and the answers that the model wants.
A kind has `compare`, and MORE where it takes a third word; MORE is what that is without one."""
