"""Cases that each run of the gate tries on the built program, as a user would use it.

    URBD_PROGRAM=crates/urbd/out/urbd python3 -m unittest discover -t . -s trials/gate
"""
