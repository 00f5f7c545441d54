"""The tests of the tools: `schema` is their database, `statements` what is advised on and what is refused."""
