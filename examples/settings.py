"""Reads a file of settings, and prints its faults with their positions, or its unknown keys and what
its settings cost.

    settings.py FILE
"""

import sys

from iox2sd import BadConfigError, Capacities, Config

try:
    file = Config.from_toml_file(sys.argv[1])
except (BadConfigError, OSError) as refusal:
    sys.exit(str(refusal))
for key in file.unknown:
    print(key)
settings = file.config.defaults.publish_subscribe
print(Capacities.of(settings))
print(f"{settings.required_amount_of_samples_per_data_segment()} samples of each publisher")
print(f"services lie in {file.config.global_cfg.service_dir()}")
