"""The journal of a registry in the cells of etcd, and fronts that answer lines by it: see docs/SCALE.md."""
