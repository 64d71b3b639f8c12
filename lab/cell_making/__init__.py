"""Makes the bundles of lab/cells. Nothing here is needed at run time: `bbmlab` reads the bundles."""
