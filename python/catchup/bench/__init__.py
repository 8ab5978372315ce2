"""How fast it is here: networks that look like roads, and what is measured over them."""
