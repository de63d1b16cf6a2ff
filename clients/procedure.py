#!/usr/bin/env python3
"""A procedure over the devices of demo/live, as one writes it for COSMOS: `clients/procedure.py [PORT]` beside `demo/live/run --console`.
It slows the satellite's bus down to a yellow voltage, sees that, and puts everything back."""
import sys

from cts import *

connect(int(sys.argv[1]) if len(sys.argv) > 1 else None, ask=lambda question: True)

wait_check("SAT HOUSEKEEPING RECEIVED_COUNT > 0", 30)
wait_check("GNSS STATUS FIX == 'FULL'", 30)
wait_check_packet("GPS GGA", 1, 30)

# The pump: its command is hazardous, so the operator is asked; connect says that this procedure answers yes.
while interface_state("PUMP_INT") != "CONNECTED":
    wait(0.5)
cmd("PUMP READ")
wait_check("PUMP REGISTERS RUNNING in ['RUNNING', 'STOPPED']", 30)
cmd("PUMP SWITCH with RUN STOP")
cmd("PUMP READ")
wait_check("PUMP REGISTERS RUNNING == 'STOPPED'", 30)
check_tolerance("PUMP REGISTERS PRESSURE", 0.4, 0.1)

# The satellite: the faster its wheel, the lower the voltage of its bus.
old_set = get_limits_set()
set_limits("SAT", "HOUSEKEEPING", "BUS", 24.0, 27.0, 32.0, 34.0)
set_limits_set("CUSTOM")
cmd("SAT", "WHEEL", {"SPEED": 2400})
wait_check("SAT HOUSEKEEPING BUS < 27", 30)
wait_packet("SAT HOUSEKEEPING", 3, 30)
for row in get_out_of_limits():
    print("out of limits:", *row)

cmd("SAT WHEEL with SPEED -1200")
cmd("PUMP SWITCH with RUN START")
wait_check("SAT HOUSEKEEPING WHEEL == -1200", 30)
wait_tolerance("SAT HOUSEKEEPING BUS", 27.3, 0.1, 30)
set_limits_set(old_set)
