"""`registry page`: a page in a browser here that shows a journal and changes nothing. `files` is what that loads."""
