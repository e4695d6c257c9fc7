"""The companion programs, a module each; `entry` of each is its command."""
