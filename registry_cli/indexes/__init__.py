"""Readers of indexes of packages that are on this machine: crates.io's, Cargo's folders, and Debian's."""
