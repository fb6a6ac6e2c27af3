"""What tools/draw, tools/pictures and tools/watch share: a run is read (config, running, sessions), followed (proxies,
readers, story), laid out (layout), and written as a page or as a drawing (page). docs/PICTURES.md says what is drawn."""
