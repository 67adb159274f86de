"""What `./ox` and the scripts stand on."""
