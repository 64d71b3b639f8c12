"""Pictures of layouts and of their runs."""
