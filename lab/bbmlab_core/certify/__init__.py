"""Making the certificate of a layout from its run."""
