"""Library of the companion programs of steer; nothing of it is part of the proved program."""
