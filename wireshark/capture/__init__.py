# SPDX-License-Identifier: MIT
"""From captured datagrams of simulated host interfaces to messages, segments and the output of `ncp` for them."""
