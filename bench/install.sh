#!/bin/sh
# Installs the libraries that the cost table sets beside the product, on Debian.
set -eu
apt-get update
apt-get install -y --no-install-recommends g++ libboost-graph-dev liblemon-dev librust-petgraph-dev
