"""The commands of `bbmlab`, a module each. A module is imported only when its command runs."""
