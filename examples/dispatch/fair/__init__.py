"""A fair dispatcher in front of a Dask cluster. It stands outside what is proved."""
