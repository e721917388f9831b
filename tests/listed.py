#!/usr/bin/env python3
"""Fails where a folder below crates/ is no crate of crates.txt: one that is left out would be proved by nobody."""
from repository import ROOT, crates, finish

folders = sorted(path.name for path in ROOT.glob("crates/*") if path.is_dir())
finish([f"crates/{name} is not listed in crates.txt" for name in folders if name not in crates()], f"crates.txt: {len(folders)} crates")
