"""The modules that several tools share, such as command lines, errors, and calls of `goal`. Nothing of it is proved."""
