#!/usr/bin/env python3
"""Counts the messages of standards whose accepted encodings are those of the published type, no others and no fewer.

usage: bench/same_messages.py PROGRAM FOLDER [STANDARD..]

FOLDER has a folder of modules for each standard, as `epan/dissectors/asn1` of Wireshark's source has. Each message is
flattened alone. A line shows its status, what is not the same, the seconds and the memory. The last lines count.
"""
import json
import os
import resource
import subprocess
import sys
import time

# the folder of each standard, files that are left out (other versions of a module), and its messages
STANDARDS = {
    "ITS": ("its", "V1.asn v1.asn 19321.asn", """CAM DENM CollectivePerceptionMessage MAPEM SPATEM IVIM SREM SSEM RTCMEM EvcsnPdu
        EV-RSR TisTpgTransactionsPdu"""),
    "1609.2": ("ieee1609dot2", "", "Ieee1609Dot2Data SignedData EncryptedData Certificate ToBeSignedCertificate"),
    "LTE RRC": ("lte-rrc", "", """BCCH-BCH-Message BCCH-DL-SCH-Message DL-CCCH-Message DL-DCCH-Message MCCH-Message
        PCCH-Message UL-CCCH-Message UL-DCCH-Message SC-MCCH-Message-r13 BCCH-BCH-Message-NB BCCH-DL-SCH-Message-NB
        DL-DCCH-Message-NB UL-DCCH-Message-NB HandoverCommand HandoverPreparationInformation
        UERadioAccessCapabilityInformation UE-EUTRA-Capability"""),
    "NR RRC": ("nr-rrc", "", """BCCH-BCH-Message BCCH-DL-SCH-Message DL-CCCH-Message DL-DCCH-Message MCCH-Message-r17
        PCCH-Message UL-CCCH-Message UL-CCCH1-Message UL-DCCH-Message SBCCH-SL-BCH-Message SCCH-Message CellGroupConfig
        UE-NR-Capability UE-MRDC-Capability HandoverPreparationInformation CG-Config"""),
    "LPP": ("lpp", "", "LPP-Message"),
    "ULP": ("ulp", "", "ULP-PDU"),
}
OPTIONS = {"IVIM": ["--levels", "2"], "Ieee1609Dot2Data": ["--levels", "4"], "SignedData": ["--levels", "4"]}


def flattened(program, files, message):
    """The report of a message, and the seconds and megabytes that it takes."""
    words = [program, "flatten", "--type", message, "--report", "json", *OPTIONS.get(message, []), *files]
    begun = time.monotonic()
    with subprocess.Popen(words, stdout=subprocess.DEVNULL, stderr=subprocess.PIPE) as ran:
        told = ran.stderr.read().decode(errors="replace").splitlines()
        used = os.wait4(ran.pid, 0)[2]
        ran.returncode = 0
    report = [json.loads(it) for it in told if it.startswith("{")]
    return report, told, time.monotonic() - begun, used.ru_maxrss / 1000


def reasons(report):
    """What is not the same, and how often."""
    counts = {}
    for it in report:
        for note in it.get("notes", []):
            words = note["remark"]
            if not words.startswith("holds a type"):
                counts[words] = counts.get(words, 0) + 1
    return ", ".join(f"{count} times {words}" for words, count in sorted(counts.items(), key=lambda it: -it[1])[:4])


def main(words):
    if len(words) < 2:
        print(__doc__, file=sys.stderr)
        return 2
    program, folder, *wanted = words
    sums = []
    for name, (part, left_out, messages) in STANDARDS.items():
        if wanted and name not in wanted:
            continue
        endings = tuple(left_out.split())
        there = sorted(os.listdir(f"{folder}/{part}"))
        files = [f"{folder}/{part}/{it}" for it in there if it.endswith(".asn") and not (endings and it.endswith(endings))]
        same = 0
        for message in messages.split():
            report, told, seconds, megabytes = flattened(program, files, message)
            status = next((it["status"] for it in report if it.get("type") == message), told[-1] if told else "no answer")
            same += status == "same" or status.startswith("same to")
            print(f"{name:8} {message:36} {status:10} {seconds:5.2f} s {megabytes:5.0f} MB  {reasons(report)}", flush=True)
        sums.append(f"{name}: {same} of {len(messages.split())}")
    print("\n".join(sums))
    return 0


resource.setrlimit(resource.RLIMIT_CORE, (0, 0))
sys.exit(main(sys.argv[1:]))
