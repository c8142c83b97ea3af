"""Piano rolls as SVG."""
