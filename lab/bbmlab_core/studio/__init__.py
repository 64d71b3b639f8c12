"""`bbmlab studio`: a local server and a page in which one draws a layout and sees the program's verdict."""
