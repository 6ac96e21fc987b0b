"""For tests: the screens in a browser without a window, the questions to them, and the offices that they show. The screens are in web/."""
