"""What the tools outside the proofs share: contents, their trees, backing files, signatures and loader streams."""
