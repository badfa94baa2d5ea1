"""A stand-in for warcio where it isn't installed: no more than its public interface, as far as rdfax calls it."""
