"""Converts Rattle sources to Rust: a pass for each concept, over tokens."""
