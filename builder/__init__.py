"""What `./build` and `.ci/run` do: which crates a program stands on, in which order they are proved, and what is made of them."""
