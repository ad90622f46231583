"""What ./install and ./release share: the layout of an installation, man pages, completions and the pkg-config file."""
