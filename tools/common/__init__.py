"""What several tools share: the kit, images and labels, the records of blocks, and what Hercules reads."""
