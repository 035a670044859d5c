"""What `.ci/compare` compares, a module for each program or idea."""
