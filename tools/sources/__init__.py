"""How tools/believe reads specs and contracts."""
