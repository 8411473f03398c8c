"""What the documents say, compared with the tree, and their walkthroughs run."""
