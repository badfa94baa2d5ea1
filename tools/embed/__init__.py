"""What ./test-embed is made of: a module for each thing that it tries."""
