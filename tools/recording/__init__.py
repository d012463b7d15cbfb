"""What tools/record-atspi and tools/record-chromium are made of: the tree of a running application, or of a web page, as a script."""
