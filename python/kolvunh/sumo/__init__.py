"""Networks beside SUMO, a simulator of single vehicles: tools/sumo/README.md. Nothing here is proved."""
