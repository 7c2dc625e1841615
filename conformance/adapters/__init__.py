"""An adapter for each tool. A module here has a list TOOLS."""
