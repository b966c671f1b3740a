#!/usr/bin/env bash
#SBATCH --job-name=pdgf-shares
#SBATCH --cpus-per-task=1
#SBATCH --mem-per-cpu=100M
#SBATCH --time=01:00:00
#SBATCH --requeue
#SBATCH --open-mode=append
# A Slurm array job of which each task makes one share. In the schema's folder, on a file system that all nodes see:
#
#     export SHARDS=/path/to/pdgf/examples/shards
#     sbatch --array=0-6 $SHARDS/shares.slurm shares 7 snapshot shop.toml --unit 12
#
# and after it, where all tasks ended well, the check:
#
#     sbatch --dependency=afterok:JOB --wrap "$SHARDS/check shares 7"
#
# A task that failed is made again alone, with the same words: sbatch --array=3 .. One whose node fails is begun again by Slurm itself (--requeue).
#
# The number of shares is a word, and not Slurm's number of tasks: in a job of task 3 alone that is 1, and it would make another share.
set -u
dir=$1
nodes=$2
shift 2
# Slurm runs a copy of this file in a place of its own, so that where it lies tells nothing.
WORKERS=${SLURM_CPUS_PER_TASK:-1} exec "${SHARDS:?names the folder examples/shards}/share" "$dir" "$SLURM_ARRAY_TASK_ID" "$nodes" "$@"
