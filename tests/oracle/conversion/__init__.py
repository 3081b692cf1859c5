"""How a volume's key is changed, by docs/CONVERSION.md."""
