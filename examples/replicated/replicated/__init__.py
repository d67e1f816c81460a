"""A monitor on several machines: each applies one log of commands, which etcd keeps, through a journal of its own."""
