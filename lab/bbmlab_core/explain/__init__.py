"""What a report or a refusal means, and edits that fix a text."""
