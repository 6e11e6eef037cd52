"""Converts SimGrid's platforms, deployments and traces, for tools/from_simgrid."""
