"""Models: second programs, each written from a request in Python, in whole numbers. tools/compare/model compares the proved code with them."""
