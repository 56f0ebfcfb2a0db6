struct answer { void *given; };
