"""Pictures of battles and of leagues."""
