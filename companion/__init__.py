"""The companion of chpc for people: what `./chpx` is made of. Nothing in here is proved, and it adds nothing to what
is."""
