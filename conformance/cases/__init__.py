"""The cases of the suite: each module has those of a chapter, or of a set. The name of a function
is the name of its case, and its first line is the sentence for people."""
