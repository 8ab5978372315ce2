"""Maps of OpenStreetMap made into the tables of a network."""
