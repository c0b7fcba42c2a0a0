"""The parts of clients/tree, which makes a tree file of a live folder: `looking` finds what is there, and has it in
order with the directories and links that lead to it, `writing` writes the file."""
