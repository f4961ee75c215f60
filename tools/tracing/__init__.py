"""A trace of `kcp simulate` as a picture: what each line did, and where on the page it stands."""
